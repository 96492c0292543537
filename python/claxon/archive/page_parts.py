"""What is the same in all pages: the head with the look of a page, and the script of the filter."""

TITLE = "FLAC files that were verified"

HEAD = f"""<!DOCTYPE html>
<html lang="en">
<head>
<meta charset="utf-8">
<meta name="viewport" content="width=device-width, initial-scale=1">
<title>{TITLE}</title>
<style>
body {{ font: 15px/1.5 sans-serif; color: #222; background: #fff; max-width: 1100px;
  margin: 1em auto; padding: 0 1em; }}
h1 {{ font-size: 1.5em; }}
h2 {{ font-size: 1.15em; margin-top: 1.8em; }}
table {{ border-collapse: collapse; }}
th, td {{ text-align: left; vertical-align: top; padding: 0.25em 1.5em 0.25em 0; }}
tr, .files > li {{ border-bottom: 1px solid #ddd; }}
.number {{ text-align: right; font-variant-numeric: tabular-nums; white-space: nowrap; }}
.none {{ color: #767676; }}
.mark::before {{ content: ""; display: inline-block; width: 0.7em; height: 0.7em;
  margin-right: 0.5em; background: currentColor; }}
.ok {{ color: #2e7d32; }}
.wrong {{ color: #b00020; }}
.beside {{ color: #1557b0; }}
.unsupported {{ color: #805300; }}
.unread {{ color: #6a1b9a; }}
.missing {{ color: #555; }}
#filter {{ position: sticky; top: 0; background: #fff; margin-top: 1.2em; padding: 0.6em 0;
  z-index: 1; border-bottom: 1px solid #888; display: flex; flex-wrap: wrap; align-items: center;
  gap: 0.5em 1.2em; }}
#filter[hidden] {{ display: none; }}
#filter [type=search], #filter select {{ font: inherit; max-width: 16em; padding: 0.15em; }}
#shown {{ margin-left: auto; font-variant-numeric: tabular-nums; }}
.files {{ list-style: none; margin: 0; padding: 0; scroll-margin-top: 7em; }}
.files > li {{ display: grid; grid-template-columns: 9em minmax(0, 1fr); padding: 0.5em 0;
  content-visibility: auto; contain-intrinsic-size: auto 5em; }}
.files > li[hidden] {{ display: none; }}
.files p {{ margin: 0; overflow-wrap: anywhere; }}
.path {{ overflow-wrap: anywhere; color: #555; }}
.path bdi {{ color: #222; font-weight: 600; }}
.now {{ font-weight: 600; }}
svg {{ display: block; width: 100%; height: 14px; margin: 0.3em 0; background: #cfe8cf; }}
.key {{ display: inline-block; width: 2.5em; margin: 0 0.4em 0 0; vertical-align: -2px; }}
p > span {{ white-space: nowrap; margin-right: 0.7em; }}
svg.cut {{ background: repeating-linear-gradient(135deg, #fff 0 4px, #999 4px 6px);
  outline: 1px solid #999; outline-offset: -1px; }}
.there {{ fill: #cfe8cf; }}
.bad {{ fill: #b00020; }}
.more {{ fill: #1557b0; }}
@media (max-width: 600px) {{ .files > li {{ grid-template-columns: minmax(0, 1fr); }} }}
</style>
</head>
<body>
<h1>{TITLE}</h1>
"""

# Files are hidden that aren't of the verdict, of the kind, or lack one of the words.
SCRIPT = """<script>
(function () {
  "use strict";
  const find = (id) => document.getElementById(id);
  const files = [...document.querySelectorAll(".files > li")];
  const form = find("filter");
  const changed = find("changed");
  let texts = null;
  function apply() {
    texts = texts || files.map((file) => file.textContent.toLowerCase());
    const words = find("words").value.toLowerCase().split(" ").filter((word) => word);
    const verdict = find("verdict").value;
    const kind = find("kind").value;
    const isNew = changed !== null && changed.checked;
    let number = 0;
    files.forEach((file, index) => {
      const isShown = (!verdict || file.dataset.verdict === verdict) &&
        (!kind || file.dataset.kind === kind) && (!isNew || "new" in file.dataset) &&
        words.every((word) => texts[index].includes(word));
      file.hidden = !isShown;
      number += isShown;
    });
    find("shown").textContent =
      number.toLocaleString("en") + " of " + files.length.toLocaleString("en") + " files";
  }
  form.addEventListener("input", apply);
  form.addEventListener("submit", (event) => event.preventDefault());
  for (const link of document.querySelectorAll("[data-of]")) {
    link.addEventListener("click", () => {
      form.reset();
      find("kind").value = link.dataset.of;
      apply();
    });
  }
  form.hidden = false;
  apply();
})();
</script>
"""

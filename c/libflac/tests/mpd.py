"""Plays a file by MPD, whose output is written to the file `result`, without a sound card.

usage: mpd.py FILE
"""
import os
import socket
import subprocess
import sys
import tempfile
import time

SETTINGS = """
music_directory "{folder}"
bind_to_address "{folder}/socket"
log_file "{folder}/log"
auto_update "no"
audio_output {{
    type "recorder"
    name "file"
    path "{folder}/output.wav"
    encoder "wave"
}}
"""


def ask(connection: socket.socket, command: str) -> str:
    connection.sendall(command.encode() + b"\n")
    answer = b""
    while not answer.endswith(b"OK\n") and b"ACK " not in answer:
        got = connection.recv(65536)
        if not got:
            break
        answer += got
    return answer.decode()


def connect(path: str) -> socket.socket:
    for _ in range(100):
        try:
            connection = socket.socket(socket.AF_UNIX)
            connection.connect(path)
            connection.recv(1000)
            return connection
        except OSError:
            time.sleep(0.05)
    sys.exit("mpd doesn't answer")


def play(folder: str, name: str) -> None:
    connection = connect(os.path.join(folder, "socket"))
    print(ask(connection, f'add "file://{os.path.abspath(name)}"'))
    print(ask(connection, "play"))
    for _ in range(400):
        if "state: stop" in ask(connection, "status"):
            break
        time.sleep(0.05)
    print(ask(connection, "kill"))


def main() -> None:
    name = os.path.abspath(sys.argv[1])
    with tempfile.TemporaryDirectory() as folder:
        settings = os.path.join(folder, "settings")
        with open(settings, "w", encoding="utf-8") as file:
            file.write(SETTINGS.format(folder=folder))
        with subprocess.Popen(["mpd", "--no-daemon", settings], stderr=subprocess.DEVNULL) as mpd:
            play(folder, name)
            mpd.wait()
        os.replace(os.path.join(folder, "output.wav"), "result")


main()

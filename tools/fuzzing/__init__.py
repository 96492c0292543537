"""Unusual and damaged streams, and what decoders have to say of them."""

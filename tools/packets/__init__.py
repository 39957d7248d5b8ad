"""Recordings of packets, .pcap and .pcapng, for transcript.py: files, headers, and the streams of TCP that they hold."""

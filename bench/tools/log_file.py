"""Writes a log file of so many records of the thirteen fields, with its hash: see instructions/audit.sh."""
import hashlib
import sys

count = int(sys.argv[1])
head = (b'#version:\tcdni/1.0\r\n#UUID:\t"urn:uuid:3f9fadca-4e7c-5959-ab16-68761abe413b"\r\n#claimed-origin:\tdcdn.example\r\n'
        b"#record-type:\tcdni_http_request_v1\r\n"
        b"#fields:\tdate\ttime\ttime-taken\tc-groupid\tcs-method\tcs-uri\tu-uri\tprotocol\tsc-status\tsc-total-bytes\tsc-entity-bytes\ts-ccid\ts-cached\r\n")
lines = []
for k in range(count):
    url = f"http://v.example/video/part-{k:07}.m4s?token={k * 7919 % 1000003}"
    lines.append(f"2026-11-{k % 30 + 1:02}\t{k % 24:02}:{k % 60:02}:{k * 7 % 60:02}.{k % 1000:03}\t{k % 5}.{k % 1000:03}\tas{64496 + k % 100}\tGET\t{url}\t{url}"
                 f"\tHTTP/1.1\t200\t{k + 134}\t{k + 10}\t-\t{k % 2}\r\n")
text = head + "".join(lines).encode()
sys.stdout.buffer.write(text + b"#SHA256-hash:\t" + hashlib.sha256(text).hexdigest().encode() + b"\r\n")

"""Serves a folder over HTTP for fleet.sh, and counts the bytes that it sends.

    python3 bench/trials/served.py FOLDER LOG

The script prints its port. LOG gets a line for each answer, with the path and how many bytes of a file were sent. The paths
below /cut have the same files, but of a file of more than 8 KB only half is sent, and then the connection ends. Below /bad,
one bit of such a file is changed.
"""

import sys
from functools import partial
from http.server import SimpleHTTPRequestHandler, ThreadingHTTPServer

LARGE = 8192


class Served(SimpleHTTPRequestHandler):
    log = open(sys.argv[2], 'w', buffering=1)

    def translate_path(self, path):
        for way in ('/cut/', '/bad/'):
            path = path[len(way) - 1:] if path.startswith(way) else path
        return super().translate_path(path)

    def copyfile(self, source, outputfile):
        content = bytearray(source.read())
        if len(content) > LARGE and self.path.startswith('/cut/'):
            del content[len(content) // 2:]
        if len(content) > LARGE and self.path.startswith('/bad/'):
            content[len(content) // 2] ^= 1
        outputfile.write(content)
        print(self.path, len(content), file=self.log)

    def log_message(self, *words):
        pass


server = ThreadingHTTPServer(('127.0.0.1', 0), partial(Served, directory=sys.argv[1]))
print(server.server_port, flush=True)
server.serve_forever()

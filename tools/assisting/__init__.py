"""The service bin/assist: what the tools beside the register say of a file, for the page.

    `answers.OFFERED`                          by name, what answers a file: bytes in, kind and bytes out
    `service.serve(path, dictionary, limits)`  answers over HTTP at a Unix socket, until it is ended"""

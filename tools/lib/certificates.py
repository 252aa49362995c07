"""A certificate of a server of tests, and the TLS that it encrypts with."""
import os
import ssl
import subprocess


def certificate_in(folder: str, names: str = "DNS:localhost") -> str:
    """Makes a certificate for these names, and its key beside it."""
    certificate = os.path.join(folder, "certificate.pem")
    subprocess.run(
        ["openssl", "req", "-x509", "-newkey", "ec", "-pkeyopt", "ec_paramgen_curve:prime256v1", "-nodes", "-days", "1", "-subj", "/CN=localhost",
         "-addext", "subjectAltName=" + names, "-keyout", os.path.join(folder, "key.pem"), "-out", certificate],
        check=True, stdin=subprocess.DEVNULL, capture_output=True,
    )
    return certificate


def context_of(certificate: str) -> ssl.SSLContext:
    """What a server encrypts with that has such a certificate."""
    context = ssl.SSLContext(ssl.PROTOCOL_TLS_SERVER)
    context.maximum_version = ssl.TLSVersion.TLSv1_2  # the greatest within TDS 7.4
    context.load_cert_chain(certificate, os.path.join(os.path.dirname(certificate), "key.pem"))
    return context

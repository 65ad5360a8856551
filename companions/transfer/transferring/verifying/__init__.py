"""Verification of an office's seals, for an auditor: Python, ssh-keygen and openssl, and nothing else of ours."""

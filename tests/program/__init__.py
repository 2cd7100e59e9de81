"""The programs npss, npss_lines and npss_caseless, from outside. ./test runs each script; ./conformance too."""

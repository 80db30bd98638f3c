"""SIB1 texts, compared with tshark as an independent reader."""

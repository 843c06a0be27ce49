"""The entries: by the word that names each in a case, its definition."""
MODULE = 'Rattle.atn.specs.Entries'
ENTRIES = {'apdu': 'parse_apdu', 'pdus': 'parse_pdus', 'cm': 'parse_cm', 'acse': 'parse_acse_apdu'}

"""The JSON tables of the program and of this package, made of a CLDR `common` folder. `python3 -m icu_locale.cldr --help`
says how they are written to a file."""

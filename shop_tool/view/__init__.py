"""A read model of a site in a file of SQLite: what pages ask for, derived from the site's files, and made again from them where it is lost."""

"""A site that lasts: the command `serve`, its journal and its crashes."""

"""A second reading of what was asked for, from the text of the requests alone: what every call on files, drawers and
trickles gives, with the layout of blocks."""

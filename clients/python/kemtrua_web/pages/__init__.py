"""What each page shows: the facts of a template, without a word of HTML."""

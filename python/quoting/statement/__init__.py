"""The statement: a month on a page, with the proved meter's reading and the recount's side by side."""

"""Draws a drive as one page.

`language`, `answers` and `journal` read its file, what `cases` answers and the journal's words; `drive` asks and puts them together, with `refusals` in words.
`layout`, `segments` and `network_layout` place the marks; `chart`, `bands` and `network_chart` draw them, with `marks` and `legend`; `page` makes one file of it."""

"""File formats: EBU STL, Teletext, layouts, and output lines of `check`.

stl            EBU STL: blocks, texts and subtitles of a subtitle file
teletext       Teletext (EN 300 706): control bits, characters, national options
midnight       moving the times of subtitle files that run over midnight
stl_writer     writing subtitle files: blocks, and the text that draws a page
layout         layouts of `--layout TEXT`: how an inserter draws a text in rows of a page
listing        output lines of `check`, and the manual's text on fault numbers
"""

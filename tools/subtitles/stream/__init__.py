"""Read the transmission in a recording, from the output of `subttx survey`, without judging it.

packets        PES packets of a Teletext PID, and announced jumps of its continuity counter
steps          unusual steps between the decoding times of pictures
pictures       places where pictures drift from Teletext
survey         the output of `subttx survey`: maps, pictures, languages
proved         a comparison of these PES packets with the proved command `packets`
gaps           places with missing packets, and PTS that do not agree with the PCR
repeats        how often a page is repeated
pace           intervals between PES packets, to detect lost packets
ranges         PES packets of a range of frames
receiver       the page that a receiver has decoded at the end of each frame
layout         the layout that draws subtitles as they were sent
"""

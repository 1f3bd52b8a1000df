vti_encoding:SR|utf8-nl
vti_timelastmodified:TR|05 Jan 2001 10:11:12 -0000

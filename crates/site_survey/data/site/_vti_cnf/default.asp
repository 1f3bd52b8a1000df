vti_encoding:SR|utf8-nl

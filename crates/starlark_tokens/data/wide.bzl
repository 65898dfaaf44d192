# Carets below wide characters, and below ones that combine.
GREETINGS = {"zh": "你好", "ja": 世界}
MARKS = ["é̂", 012]

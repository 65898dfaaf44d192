def mode(name):
    modes = {"shell": 0o755, "text": 0644}
    return modes[name]

"""How a bug is planted: texts of a file, each of which stands there once, with others in their places."""


def plant(path, edits):
    """Puts each new text in the place of its old one, in turn."""
    text = path.read_text(encoding="utf-8")
    for old, new in edits:
        if text.count(old) != 1:
            raise RuntimeError(f"the text to be edited stands {text.count(old)} times in {path.name}")
        text = text.replace(old, new)
    path.write_text(text, encoding="utf-8")

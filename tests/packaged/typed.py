"""What an installed package says of itself to a type checker: typed.py. It looks where a type checker does."""

import importlib.metadata
import importlib.util
import pathlib

folder = pathlib.Path(importlib.util.find_spec("felter").origin).parent
assert (folder / "py.typed").is_file(), "the mark of a typed package is not there"
files = {str(it) for it in importlib.metadata.files("felter")}
assert "felter/py.typed" in files, "the mark is not a file of the package"
meta = importlib.metadata.metadata("felter")
assert meta["License"] == "Apache-2.0" and meta["Requires-Python"] == ">=3.8" and "Typing :: Typed" in meta.get_all("Classifier")
text = meta.get_payload() or meta["Description"]
assert "import felter" in text, "there is no long description"
assert any(it.endswith("LICENSE") for it in files), "there is no licence"
print("typed, with its metadata")

"""The files of pages. No two of them differ by capitals alone, so that they stand on every file system."""

FOLDERS = {"sort": "sorts", "term": "terms", "assertion": "theorems"}


class Files:
    def __init__(self, declared):
        self._files, self._taken = {}, set()
        for it in declared:
            self.of(it.space, it.name, False)

    def of(self, space, name, is_local):
        """The page of a sort, a term or an assertion, from the top of the folder."""
        key = space, name, is_local
        made = self._files.get(key)
        if made is None:
            made = self._files[key] = self._new(f"{FOLDERS[space]}/{name}")
        return made

    def _new(self, path):
        number, made = 1, path
        while made.lower() in self._taken:
            number += 1
            made = f"{path}-{number}"
        self._taken.add(made.lower())
        return made + ".html"

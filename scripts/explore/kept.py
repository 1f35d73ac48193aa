"""What stays of pages that were written before: those of theorems whose page would be the same. A page stays where all is the
same that it is made of: its statement and proof, what it rests on, its neighbours, all terms and notations, and these scripts."""
import contextlib
import glob
import hashlib
import json
import os

FILE = "made.json"
END = "<!-- what uses it -->\n"  # behind it stands what is known of the other pages


def digest(*parts):
    return hashlib.sha256(repr(parts).encode("utf-8", "surrogatepass")).hexdigest()


def of_scripts():
    """A digest of what makes pages."""
    found = []
    for path in sorted(glob.glob(os.path.join(os.path.dirname(os.path.abspath(__file__)), "*.py"))):
        with open(path, "rb") as file:
            found.append(file.read())
    return digest(found)


class Kept:
    """The pages in a folder, a line each: its digest, and what of it stands in lists. A page that is being written has none, so
    that what a run has made that was ended stays, too."""

    def __init__(self, folder):
        self.folder, path = folder, os.path.join(folder, FILE)
        self.before = {page: (made_of, *listed) for page, made_of, *listed in lines(path)}
        self.file = open(path, "w", encoding="utf-8")

    def stays(self, page, made_of):
        """Whether a page is there that is made of the same; then what stands behind its end is taken away."""
        known, path = self.before.get(page), os.path.join(self.folder, page)
        if not known or known[0] != made_of:
            return False
        try:
            with open(path, "rb+") as file:
                at = file.read().rfind(END.encode())
                if at < 0:
                    return False
                file.truncate(at + len(END))
        except OSError:
            return False
        return True

    def note(self, page, made_of, *listed):
        print(json.dumps([page, made_of, *listed], ensure_ascii=False, separators=(",", ":")), file=self.file)

    def finish(self):
        self.file.close()


def lines(path):
    """What was noted of pages; of a run that was ended the last line may be none."""
    with contextlib.suppress(OSError, ValueError), open(path, encoding="utf-8") as file:
        for line in file:
            noted = json.loads(line)
            if isinstance(noted, list):
                yield noted

"""Extracts the contents of each file on a shelf. It has all the options of `follow`. A text becomes a UTF-8 .txt
without its binary header; JPEG, GIF and PNG images keep their form, and other images become .png. A zip with one file
becomes that file, and a zip with several becomes a folder. It stays a .zip if it has more than 256 files, unpacks to
more than 64 MiB or 200 times its size, or can't be read. Other data becomes a .bin, and a file that can't be opened
stays whole, as .lrit. With --latest the newest text of each heading and centre is also
FOLDER/latest/HEADING-CENTRE.txt, such as latest/FZNT01-KWBC.txt. What was extracted is recorded in FOLDER/.contents.
"""

from . import bulletins
from . import folder as folders
from . import images, program, texts
from .shelf import StoredFile

MOST_MEMBER_CHARACTERS = 40  # of a member's name that joins the name of its zip


def product_of(path: str, file: StoredFile) -> folders.Product:
    """Returns what is extracted from a file."""
    what = f"file {file.number} of {path}"
    if not file.header.is_open:
        return whole(file)
    if file.header.is_image:
        return product_of_image(file, what)
    try:
        files = texts.inside(file)
    except texts.BadZip as fault:
        program.tell(f"{what} stays a zip: {fault}")
        return folders.Product(texts.ZIP_ENDING, file.data)
    if len(files) > 1:
        return folders.Product("", files)
    ((name, data),) = files.items()
    found = bulletins.headings_of(file)
    heading = bulletins.key_of(found[0]) if found else ""
    return folders.Product(
        name if name.startswith(".") else "-" + name[-MOST_MEMBER_CHARACTERS:], data, heading=heading
    )


def whole(file: StoredFile) -> folders.Product:
    """Returns the file as it is, if nothing in it can be opened."""
    return folders.Product(folders.WHOLE_ENDING, file.proper, False)


def product_of_image(file: StoredFile, what: str) -> folders.Product:
    ending = texts.ending_of(file.data)
    if ending:
        return folders.Product(ending, file.data)
    picture = images.picture_of(file)
    if picture:
        return folders.Product(".png", images.png_of(picture))
    if file.header.is_lossless:
        program.tell(f"{what} stays as it is: the program {program.name()} exports no image of it")
    return whole(file)

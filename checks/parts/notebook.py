"""Runs examples/notebook.ipynb: each cell of code in turn, and the picture of what it ends with; then the same by
Jupyter's nbconvert without a screen, where this Python has it, which must show as many pictures. Run by checks/embed.

    python3 checks/parts/notebook.py [FOLDER]

FOLDER gets notebook.html, to be looked at, where nbconvert is there: each picture as Jupyter shows it, an image of its
own (nbconvert 6.5 takes the marks out of a picture that it puts into a page)."""
import ast
import base64
import html
import importlib.util
import json
import os
import subprocess
import sys
import tempfile
import xml.dom.minidom

TOP = os.path.dirname(os.path.dirname(os.path.dirname(os.path.abspath(__file__))))
NOTEBOOK = f"{TOP}/examples/notebook.ipynb"
PICTURES = 4


def run_cell(source, names):
    """Runs a cell, and gives what its last expression is."""
    parts = ast.parse(source).body
    last = parts.pop() if parts and isinstance(parts[-1], ast.Expr) else None
    exec(compile(ast.Module(parts, []), "a cell", "exec"), names)
    return None if last is None else eval(compile(ast.Expression(last.value), "a cell", "eval"), names)


def here(cells):
    """How many pictures the cells show in this process."""
    names, shown = {}, 0
    for source in cells:
        value = run_cell(source, names)
        if hasattr(value, "_repr_svg_"):
            xml.dom.minidom.parseString(value._repr_svg_())
            shown += 1
        assert repr(value) is not None
    return shown


def shown_output(output):
    """An output as a page has it."""
    data = output.get("data", {})
    if "image/svg+xml" in data:
        packed = base64.b64encode("".join(data["image/svg+xml"]).encode()).decode()
        return f'<img src="data:image/svg+xml;base64,{packed}">'
    return f"<pre>{html.escape(''.join(output.get('text', data.get('text/plain', ''))))}</pre>"


def page_of(cells):
    """The cells with their outputs, as a page."""
    parts = []
    for cell in cells:
        parts.append(f"<pre class={cell['cell_type']}>{html.escape(''.join(cell['source']))}</pre>")
        parts += map(shown_output, cell.get("outputs", []))
    style = "<style>body { font: 14px sans-serif } .code { background: #eee } .markdown { font-weight: bold }</style>"
    return f"<!doctype html><meta charset=utf-8>{style}{''.join(parts)}"


def by_jupyter(folder, to):
    """How many pictures Jupyter shows; no cell fails."""
    how = [sys.executable, "-m", "nbconvert", "--execute", "--log-level", "ERROR", "--output-dir", folder]
    subprocess.run([*how, "--to", "notebook", NOTEBOOK], check=True, stderr=subprocess.DEVNULL)
    with open(f"{folder}/notebook.ipynb", encoding="utf-8") as file:
        cells = json.load(file)["cells"]
    if to:
        with open(f"{to[0]}/notebook.html", "w", encoding="utf-8") as file:
            file.write(page_of(cells))
    outputs = [it for cell in cells for it in cell.get("outputs", [])]
    assert not [it for it in outputs if it["output_type"] == "error" or it.get("name") == "stderr"], outputs
    return sum("image/svg+xml" in it.get("data", {}) for it in outputs)


def main():
    with open(NOTEBOOK, encoding="utf-8") as file:
        cells = [cell for cell in json.load(file)["cells"] if cell["cell_type"] == "code"]
    assert not any(cell["outputs"] for cell in cells), "the notebook has outputs: they would grow old"
    with open(os.devnull, "w", encoding="utf-8") as nowhere:
        out, sys.stdout = sys.stdout, nowhere
        try:
            shown = here(["".join(cell["source"]) for cell in cells])
        finally:
            sys.stdout = out
    assert shown == PICTURES, f"{shown} pictures"
    if importlib.util.find_spec("nbconvert") is None or importlib.util.find_spec("ipykernel") is None:
        print(
            f"examples/notebook.ipynb: {shown} pictures; not run by Jupyter, this Python has no nbconvert or ipykernel"
        )
        return
    with tempfile.TemporaryDirectory(prefix="evlsim-notebook-") as folder:
        assert by_jupyter(folder, sys.argv[1:]) == PICTURES
    print(f"examples/notebook.ipynb: {shown} pictures, here and by Jupyter")


main()

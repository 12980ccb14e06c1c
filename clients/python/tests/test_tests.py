"""No test is hidden by a later one of its name, and so left out."""
import ast
import pathlib
import unittest


class Names(unittest.TestCase):
    def test_each_once(self):
        for path in sorted(pathlib.Path(__file__).resolve().parent.glob("*.py")):
            for made in ast.walk(ast.parse(path.read_text(encoding="utf-8"))):
                if isinstance(made, (ast.ClassDef, ast.Module)):
                    names = sorted(it.name for it in made.body if isinstance(it, (ast.ClassDef, ast.FunctionDef)))
                    self.assertEqual(names, sorted(set(names)), f"{path.name}: {getattr(made, 'name', 'module')}")


if __name__ == "__main__":
    unittest.main()

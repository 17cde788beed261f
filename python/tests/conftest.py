"""In the tree the package is not installed, so its fixture is named here, beside that for tests of fixtures."""
pytest_plugins = ["inputflinger.pytest_plugin", "pytester"]

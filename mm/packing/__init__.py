"""Packages and installs, for `tools/package` and `tools/install` (docs/INSTALL.md).

    tree      files in memory: what a package has of a checkout, and what is read from a folder
    places    where each file of a checkout or a package belongs under a prefix
    install   writes them there with a list, and removes what the list names
    vsix      the extension for Visual Studio Code as one file
    package   the package: the same bytes from the same commit and program"""

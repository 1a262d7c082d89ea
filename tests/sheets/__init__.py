"""Assembler and disassembler for the sheets of document 01."""

"""What the Python scripts of `trials/` and of `bench/` share. (`bench/shared.py` makes this folder known there.)"""

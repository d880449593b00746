#!/usr/bin/env python3
print("made by hand")

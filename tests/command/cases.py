#!/usr/bin/env python3
"""Runs the command `cfu` and checks its lines, its status and its files against docs/COMMAND.md, documents 01 and 02 (A1, A3 to A5) and include/words.txt.

cases.py CFU [PART ..]    CFU is the program; PART is inspecting, making, cutting, updating, every_verb or colours, without one all of them

What is expected is worked out by model.py from the formats of tests/cfu.py, and never taken from a run.
"""
import common  # first: it sets where the formats are found
import colours
import cutting
import every_verb
import inspecting
import making
import updating

common.main("tests/command/cases.py", __doc__, [module.cases for module in (inspecting, making, cutting, updating, every_verb, colours)])

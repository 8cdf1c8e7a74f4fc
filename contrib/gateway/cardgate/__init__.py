"""A gateway before `cardswitch run`: many clients over TCP, several engines, and a card always at the same engine.

What it keeps to, rule by rule (G1 to G8), and what it promises is in docs/operate/SCALING.md.
"""

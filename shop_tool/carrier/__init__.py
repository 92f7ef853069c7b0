"""What is decided while packets are carried: with no clock, no file and no socket, so that it can be tried under every schedule.

Each machine here is a generator: it yields the steps that it wants done, one after the other, and is sent what came of each, or what went
wrong. The shell around it does them, and a simulation does them too.
"""

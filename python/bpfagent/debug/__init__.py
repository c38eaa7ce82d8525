"""A debugger by source for programs that an agent runs: `bpfagent-debug`.

`engine` controls machines and reads their state, `lines` and `symbols` read DWARF by pyelftools, `expressions` evaluates what
the user asks for. `terminal` and `dap` are two fronts of the same engine: a terminal, and the Debug Adapter Protocol.
"""

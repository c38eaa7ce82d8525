"""A front for many clients: the command `bpfagent-front`.

An agent takes eight connections in its life. The front takes all of them, and serves any number of clients over them, one after the other
and at the same time. It isn't proved.
"""

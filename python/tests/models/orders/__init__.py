"""An interpreter of small programs by all orders of evaluation that C allows, and random programs for it.

It goes by pycparser's tree and by C11 (6.5p2, p3, 6.5.2.2p10, 6.7.9p23), and shares nothing with fshell order.
"""

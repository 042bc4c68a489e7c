"""The tools' model in the place of the programs, where these aren't built: the same words, inputs, outputs and statuses,
without a proof. `diltzekun` and `diltzekun-live` in this folder are run as the programs are; their manual pages, in docs,
say what they do.
"""

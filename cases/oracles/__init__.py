"""What the product answers, stated a second time: computed here from the meaning of a task and the words of the documents, by the plainest
code that says it, and by nothing of the product. The cases of the folder above compare the two. Where a definition is wrong, proofs hold
all the same; what is here is what could show it.
"""

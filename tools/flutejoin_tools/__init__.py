"""The modules of flutejoin's tools: a folder for each subject, as tools/README.md has them."""
import os

# Where the tools are that start them
TOOLS = os.path.dirname(os.path.dirname(os.path.realpath(__file__)))

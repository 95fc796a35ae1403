"""What tests want and give: registers, plans, scripts, messages and files, by the rules of docs/ and of other formats. None starts the program."""

print("more tables")

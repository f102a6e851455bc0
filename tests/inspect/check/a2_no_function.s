! nothing

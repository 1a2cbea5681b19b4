"""The code of the module lekhnaom: import that."""

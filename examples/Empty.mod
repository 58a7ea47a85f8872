MODULE Empty;
END Empty.

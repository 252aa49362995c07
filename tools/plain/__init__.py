"""The plain reading of responses, the cases that it and the program read, and the wrong rules that a case has to show."""

struct pair { int first; struct { int second; }; };

A __STDC__

int _Generic;

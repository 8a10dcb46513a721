-- Members of a club once more. What do its keys promise?
CREATE TABLE members (number INT NOT NULL UNIQUE, name TEXT NOT NULL, born INT, mail TEXT UNIQUE, CERTAIN KEY (name, born));
IMPLIES members CERTAIN KEY (number);
IMPLIES members CERTAIN KEY (mail);
IMPLIES members POSSIBLE KEY (name, mail);
COVER OF members;

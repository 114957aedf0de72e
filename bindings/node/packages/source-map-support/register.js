require('junketscarp/source-map-support/register');

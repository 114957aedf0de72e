export { default } from 'junketscarp/remapping';

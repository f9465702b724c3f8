// For resolvers that don't read `exports`.
export * from './src/index.js';
